# Completes in a shell of its own, on a terminal, and ends once each line is completed:
#
#     zsh -f checks/help/completed.zsh FUNCTIONS FOLDER
#
# FUNCTIONS is the folder of the completion, and FOLDER the one from which files are completed. What isn't completed as it
# is to be is waited for without end.
zmodload zsh/zpty
zpty shell zsh -f -i
zpty -w shell "PROMPT=; fpath=(${(q)1} \$fpath); autoload -Uz compinit; compinit -u -D; bindkey '^I' complete-word; cd ${(q)2}"
zpty -w shell 'echo be''gun'
zpty -r shell seen '*begun*'

# completed LINE PATTERN: whether a line is completed to one like this.
completed() {
  zpty -w -n shell "$1"$'\t'
  zpty -r shell seen "*$~2*"
  # the line goes, and its end is waited for
  zpty -w -n shell $'\C-u'"echo gone-$1"$'\C-u'
  zpty -r shell seen '*gone-*'
}

completed 'nix-dispatch r' 'report*run*'
completed 'nix-dispatch build --keep-f' 'ailed'
completed 'nix-dispatch run --jobs 3 --res' 'ume'
completed 'nix-dispatch build -o i' 'nner'
completed 'nix-dispatch gather -o out it' '.drv'
completed 'nix-dispatch audit --history oth' 'er'
completed 'nix-dispatch ask --builders @oth' 'er'
zpty -d shell
