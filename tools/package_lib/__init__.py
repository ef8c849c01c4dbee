"""What `tools/package` is made of: Python 3.11, and Debian's dpkg-dev, help2man and binutils."""
