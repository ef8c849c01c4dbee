"""What `tools/planner` is made of: Python 3.11; only pages and plots take more than its standard library."""
