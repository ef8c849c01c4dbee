"""Completion for bash, of the commands and options that the help has."""

from .helps import Page

_SCRIPT = """\
# Completion of {program} for bash: commands and options, of its own help; else files.
declare -gA _{program}_words=(
{table}
)

_{program}() {{
    local path={program} current=${{COMP_WORDS[COMP_CWORD]}} word words
    for word in "${{COMP_WORDS[@]:1:COMP_CWORD-1}}"; do
        [[ -z ${{_{program}_words["$path $word"]-}} ]] || path+=" $word"
    done
    words=${{_{program}_words[$path]}}
    COMPREPLY=()
    for word in $words; do
        [[ $word != "$current"* || ($word == -* && $current != -*) ]] || COMPREPLY+=("$word")
    done
}}

complete -o default -F _{program} {program}
"""


def completion(pages: list[Page]) -> str:
    """The script of one program."""
    table = "\n".join(f'    ["{" ".join(page.words)}"]="{" ".join(page.commands + page.options)}"' for page in pages)
    return _SCRIPT.format(program=pages[0].words[0], table=table)
