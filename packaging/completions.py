"""Completions of the command line for bash, zsh and fish, from the one list of commands."""
from packaging import facts

LAST_PORT = 65535


def bash() -> str:
    """A completion for bash."""
    names = " ".join(command.name for command in facts.commands())
    return f"""# completion of ipbus for bash
_ipbus() {{
    local current=${{COMP_WORDS[COMP_CWORD]}}
    COMPREPLY=()
    if [ "$COMP_CWORD" -eq 1 ]; then
        mapfile -t COMPREPLY < <(compgen -W "{names}" -- "$current")
    fi
}}
complete -F _ipbus ipbus
"""


def zsh() -> str:
    """A completion for zsh."""
    rows = "\n".join(f"        '{command.name}:{command.does}'" for command in facts.commands())
    return f"""#compdef ipbus
# completion of ipbus for zsh
_ipbus() {{
    local -a commands
    commands=(
{rows}
    )
    if (( CURRENT == 2 )); then
        _describe -t commands 'ipbus command' commands
        return
    fi
    case $words[2] in
        serve) _message 'a port, 1 to {LAST_PORT}, and a number of connections, 1 to 64' ;;
        load) _message 'a number of additions, 1 to 100000' ;;
        check) _message 'the name of a register table' ;;
    esac
}}
_ipbus "$@"
"""


def fish() -> str:
    """A completion for fish."""
    head = "# completion of ipbus for fish\ncomplete -c ipbus -f\n"
    rows = [f"complete -c ipbus -n __fish_use_subcommand -a {command.name} -d '{command.does}'" for command in facts.commands()]
    return head + "\n".join(rows) + "\n"
