# bash: the options of demangle
complete -W '--no-params --brief --short --keep-inline --types --color --escape --json --limit --spelling --format --why --strict --help --version' demangle
