#!/usr/bin/env python3
"""Writes the completions of nbt, nbt-look and the tools, for bash and zsh, from their help texts.

Usage: tools/completions.py bash|zsh [PROGRAM [LOOK]] >FILE, as `make completions` does for completions/nbt.bash and completions/_nbt. LOOK is
the built nbt-look.
"""
import os
import re
import subprocess
import sys

HERE = os.path.dirname(os.path.abspath(__file__))
BUILT = [os.path.join(HERE, '..', 'crates', *each) for each in (('nbt', 'out', 'nbt'), ('nbt_look', 'out', 'nbt_look'))]
TOOLS = 'nbt-look-tshark', 'nbt-cap2pcap', 'nbt-dask', 'nbt-station'
WRITTEN = 'Completion of nbt and its tools. tools/completions.py wrote it from their help texts.'

COMMAND = re.compile(r'^  ([a-z]+) +(.*)', re.MULTILINE)
OPTION = re.compile(r'^ +(?:-[a-zA-Z], )?(--[a-z-]+|-[a-z])(?: <([A-Z][A-Z,.]*)>)?  +(.*)', re.MULTILINE)
TOOL_OPTION = re.compile(r'(?<![-\w`])(--?[a-z][a-z-]*)(?: ([A-Z][A-Z=]*))?')
PACKET = re.compile(r'([a-z]+)(?: and ([a-z]+))?(?= [A-Z]| \(the same\)|,|$)')


def help_of(*words):
    environment = dict(os.environ, COLUMNS='200')
    return subprocess.run([*words, '--help'], check=True, stdout=subprocess.PIPE, text=True, env=environment).stdout


class Command:
    """A command of nbt: its name, what it does, its options (name, value, help), and the packets that it builds."""

    def __init__(self, program, name, about):
        text = help_of(program, name)
        self.name, self.about = name, about
        self.options = OPTION.findall(text)
        self.packets = packets_of(text) if name == 'build' else []


def packets_of(text):
    """The words of the lists `Port 137: query ID NAME, ..`."""
    lists = re.search(r'^Port .*?(?=\n\n)', text, re.MULTILINE | re.DOTALL)[0]
    words = []
    for each in re.split(r'\n?Port \d+: |,\s', lists):
        match = PACKET.match(each)
        words += [word for word in match.groups() if word] if match else []
    return words


def commands_of(program):
    lists = re.search(r'^Commands:\n(.*?)\n\n', help_of(program), re.MULTILINE | re.DOTALL)[1]
    return [Command(program, name, about) for name, about in COMMAND.findall(lists) if name != 'help']


def options_of(look):
    """Of nbt-look and each tool the options: name, value, help, of which a tool has none."""
    return {'nbt-look': OPTION.findall(help_of(look))} | {name: [(*each, '') for each in tool_options(name).items()] for name in TOOLS}


def tool_options(name):
    """The options of a tool, each with its value, if it takes one."""
    options = {}
    for option, value in TOOL_OPTION.findall(help_of(os.path.join(HERE, name))):
        options[option] = options.get(option) or value
    options.pop('-h', None)
    options['--help'] = ''
    return options


# ---- bash

BASH = '''# {written}

_nbt() {{
    local words=''
    case $COMP_CWORD:${{COMP_WORDS[1]}} in
    1:*) words='{names} help --help --version' ;;
    2:help) words='{names}' ;;
{commands}
    esac
    case $3 in
    {values}) words='' ;;
    esac
    COMPREPLY=($(compgen -W "$words" -- "$2"))
}}
complete -F _nbt nbt

_nbt_tool() {{
    local words=''
    case ${{1##*/}} in
{tools}
    esac
    COMPREPLY=()
    [[ $2 != -* ]] || COMPREPLY=($(compgen -W "$words" -- "$2"))
}}
complete -o default -F _nbt_tool {tool_names}
'''


def bash_command(command):
    words = ' '.join(option for option, _value, _help in command.options)
    if not command.packets:
        return "    *:%s) words='%s' ;;" % (command.name, words)
    return '\n'.join(("    *:%s)" % command.name,
                      "        words='%s'" % words,
                      "        case $3 in %s | --broadcast) words+=' %s' ;; esac" % (command.name, ' '.join(command.packets)),
                      "        ;;"))


def bash(commands, tools):
    values = sorted({option for command in commands for option, value, _help in command.options if value})
    return BASH.format(written=WRITTEN, names=' '.join(command.name for command in commands),
                       commands='\n'.join(map(bash_command, commands)), values=' | '.join(values),
                       tools='\n'.join("    %s) words='%s' ;;" % (name, ' '.join(each[0] for each in options)) for name, options in tools.items()),
                       tool_names=' '.join(tools))


# ---- zsh

ZSH = '''#compdef nbt {tool_names}
# {written}

_nbt_commands() {{
    local -a commands=(
{commands}
    )
    _describe command commands
}}

_nbt_command() {{
    case $1 in
    help) _arguments '1:command:_nbt_commands' ;;
{options}
    esac
}}

case $service in
nbt)
    if (( CURRENT == 2 )); then
        _nbt_commands
        _arguments '(- *)--help[Print help]' '(- *)--version[Print version]'
    else
        shift words
        (( CURRENT-- ))
        _nbt_command $words[1]
    fi
    ;;
{tools}
esac
'''


def quoted(text):
    return "'%s'" % text.replace("'", "'\\''")


def zsh_option(option, value, text=''):
    named = option + ('[%s]' % re.sub(r'([\[\]:\\])', r'\\\1', text) if text else '')
    return quoted(named + (':%s:' % value if value else ''))


def zsh_command(command):
    words = [zsh_option(*option) for option in command.options]
    if command.packets:
        words += [quoted('1:packet:(%s)' % ' '.join(command.packets)), quoted('*:field:')]
    return '    %s) _arguments %s ;;' % (command.name, ' '.join(words))


def zsh_tool(name, options):
    words = [zsh_option(*each) for each in options]
    return "%s) _arguments %s '*:file:_files' ;;" % (name, ' '.join(words))


def zsh(commands, tools):
    lines = [quoted('%s:%s' % (command.name, command.about)) for command in commands]
    lines.append(quoted('help:Print the help of a command, or of a refusal'))
    return ZSH.format(written=WRITTEN, tool_names=' '.join(tools), commands='\n'.join('        ' + line for line in lines),
                      options='\n'.join(map(zsh_command, commands)), tools='\n'.join(zsh_tool(*each) for each in tools.items()))


def main():
    shell, *given = sys.argv[1:] or ['']
    if shell not in ('bash', 'zsh') or len(given) > 2:
        sys.exit(__doc__.strip())
    program, look = map(os.path.abspath, given + BUILT[len(given):])
    sys.stdout.write((bash if shell == 'bash' else zsh)(commands_of(program), options_of(look)))


if __name__ == '__main__':
    main()
