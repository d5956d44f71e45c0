"""Completions for bash, zsh and fish, made of what the program tells of its command line."""
from help_texts import NAME, Commands, Entry


def places(commands: Commands, flag: str) -> list[str]:
    """Where a flag has a value: behind each command, or behind those of whose options it has one."""
    having = [(name, option.value) for name in commands.names for option in commands.helps[name].options if flag in option.flags]
    return [f'*/{flag}'] if all(value for _, value in having) else [f'{name}/{flag}' for name, value in having if value]


def bash(commands: Commands) -> str:
    cases = []
    for name in commands.names:
        words = ' '.join(flag for option in commands.helps[name].options for flag in option.flags)
        cases.append(f"        {name}) options='{words}' ;;")
    top = ' '.join(flag for option in commands.top.options for flag in option.flags)
    choices = []
    free: list[str] = []
    for flag, option in {flag: option for name in commands.names for option in commands.helps[name].options if option.value
                         for flag in option.flags}.items():
        if commands.values[option.long]:
            values = ' '.join(commands.values[option.long])
            choices.append(f"        {'|'.join(places(commands, flag))}) COMPREPLY=($(compgen -W '{values}' -- \"$word\")); return ;;")
        else:
            free += places(commands, flag)
    if free:
        choices.append(f"        {'|'.join(sorted(free))}) return ;;")
    return '\n'.join([
        '# Completions of flamecollect for bash. Written by checks/manual from the help of the program.',
        '_flamecollect() {',
        '    local word=${COMP_WORDS[COMP_CWORD]} before=${COMP_WORDS[COMP_CWORD-1]} options',
        '    COMPREPLY=()',
        '    # After an option a value may stand behind `=`, which is a word of its own.',
        "    if [ \"$word\" = = ]; then word=; elif [ \"$before\" = = ]; then before=${COMP_WORDS[COMP_CWORD-2]}; fi",
        '    case ${COMP_WORDS[1]}/$before in',
        *choices,
        '    esac',
        "    if [ \"$COMP_CWORD\" = 1 ]; then",
        f"        COMPREPLY=($(compgen -W '{' '.join(commands.names)} help {top}' -- \"$word\"))",
        '        return',
        '    fi',
        '    case ${COMP_WORDS[1]} in',
        *cases,
        f"        help) COMPREPLY=($(compgen -W '{' '.join(commands.names)}' -- \"$word\")); return ;;",
        '        *) return ;;',
        '    esac',
        '    case $word in',
        "        -*) COMPREPLY=($(compgen -W \"$options\" -- \"$word\")) ;;",
        "        *) compopt -o filenames; mapfile -t COMPREPLY < <(compgen -f -- \"$word\") ;;",
        '    esac',
        '}',
        f'complete -F _flamecollect {NAME}',
        '',
    ])


def quoted(text: str) -> str:
    return text.replace("'", "'\\''")


def zsh_option(commands: Commands, option: Entry) -> list[str]:
    text = quoted(option.text.replace('[', '\\[').replace(']', '\\]').replace(':', '\\:'))
    value = ''
    if option.value:
        listed = commands.values.get(option.long, [])
        value = f':{option.value.lower()}:' + (f"({' '.join(listed)})" if listed else ' ')
    # An option that may stand several times has a star, every other one excludes itself under its other name.
    is_repeated = option.long in commands.repeated
    front = '*' if is_repeated else f"({' '.join(option.flags)})" if len(option.flags) > 1 else ''
    specs = []
    for flag in option.flags:
        joint = '' if not value else '=' if flag.startswith('--') else '+'
        specs.append(f"'{front}{flag}{joint}[{text}]{value}'")
    return specs


def zsh_options(commands: Commands, options: list[Entry]) -> list[str]:
    return [f'            {spec} \\' for option in options for spec in zsh_option(commands, option)]


def zsh(commands: Commands) -> str:
    cases = []
    for name in commands.names:
        options = zsh_options(commands, commands.helps[name].options)
        cases += [f'        {name}) _arguments \\', *options, "            '*:file:_files' ;;"]
    return '\n'.join([
        f'#compdef {NAME}',
        '# Completions of flamecollect for zsh. Written by checks/manual from the help of the program.',
        '_flamecollect() {',
        '    local -a commands',
        '    commands=(',
        *(f"        '{name}:{quoted(commands.abouts[name])}'" for name in commands.names),
        "        'help:Tell how a command is used'",
        '    )',
        '    if (( CURRENT == 2 )); then',
        '        _describe command commands',
        '        _arguments \\',
        '\n'.join(zsh_options(commands, commands.top.options)).removesuffix(' \\'),
        '        return',
        '    fi',
        '    local command=$words[2]',
        '    (( CURRENT -= 1 ))',
        '    shift words',
        '    case $command in',
        *cases,
        '        help) _describe command commands ;;',
        '    esac',
        '}',
        '_flamecollect "$@"',
        '',
    ])


def fish(commands: Commands) -> str:
    lines = [
        '# Completions of flamecollect for fish. Written by checks/manual from the help of the program.',
        f'complete -c {NAME} -f -n __fish_use_subcommand',
    ]
    for name in commands.names:
        lines.append(f"complete -c {NAME} -n __fish_use_subcommand -a {name} -d '{fish_text(commands.abouts[name])}'")
    for option in commands.top.options:
        lines.append(fish_option(commands, '__fish_use_subcommand', option))
    for name in commands.names:
        for option in commands.helps[name].options:
            lines.append(fish_option(commands, f"'__fish_seen_subcommand_from {name}'", option))
    lines.append(f"complete -c {NAME} -n '__fish_seen_subcommand_from help' -f -a '{' '.join(commands.names)}'")
    return '\n'.join(lines) + '\n'


def fish_text(text: str) -> str:
    return text.replace('\\', '\\\\').replace("'", "\\'")


def fish_option(commands: Commands, when: str, option: Entry) -> str:
    parts = [f'complete -c {NAME} -n {when}']
    parts += [f'-s {option.short[1:]}'] if option.short else []
    parts += [f'-l {option.long[2:]}'] if option.long else []
    if option.value:
        listed = commands.values.get(option.long, [])
        parts.append('-x' + (f" -a '{' '.join(listed)}'" if listed else ''))
    parts.append(f"-d '{fish_text(option.text)}'")
    return ' '.join(parts)
