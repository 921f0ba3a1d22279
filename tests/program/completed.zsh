#!/usr/bin/env zsh
# What zsh offers at the end of command lines, in a terminal of its own: for each line the words that match, in one line.
# Usage: zsh -f tests/program/completed.zsh FOLDER LINE.., where FOLDER has the completions.
zmodload zsh/zpty
TERM=dumb
zpty shell zsh -f -i
zpty -w shell "PROMPT=; fpath=(${(q)1} \$fpath); autoload -Uz compinit; compinit -D -u"
# What matches is printed, and not inserted.
zpty -w shell 'compadd() {
    if [[ ${@[1,(i)(-|--)]} == *-(O|A|D)\ * ]]; then builtin compadd "$@"; return; fi
    local -a matches
    builtin compadd -A matches "$@"
    (( $#matches )) && print -rl -- "" "offered "${^matches}
    return 0
}'
zpty -w shell 'asked() { _main_complete; print; print -r -- "asked"; }; zle -C asked complete-word asked; bindkey "^I" asked; print rea""dy'
zpty -r shell got '*ready*'
for line in "${@[2,-1]}"; do
    zpty -w -n shell $'\C-u'"$line"$'\t'
    zpty -r shell got '*asked*'
    print -r -- $(print -r -- "$got" | tr -d '\r' | sed -n 's/^offered //p')
done
zpty -d shell
