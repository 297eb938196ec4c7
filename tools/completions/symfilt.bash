# bash: the options of symfilt
complete -W '--limit --stats --short --keep-inline --brief --no-params --wide --legacy --ascii-words --press --help --version' symfilt
