# fish: the options of symfilt
complete -c symfilt -f
complete -c symfilt -l limit -x -d 'Greatest cost of a text'
complete -c symfilt -l stats -d 'Rows, nodes and steps of each symbol'
complete -c symfilt -l short -d 'Leave out what is the default in std'
complete -c symfilt -l keep-inline -d 'With --short, keep inline namespaces'
complete -c symfilt -l brief -d 'Leave out template and generic arguments'
complete -c symfilt -l no-params -d 'Print functions by their names'
complete -c symfilt -l wide -d 'Read C++ symbols by the wide grammar'
complete -c symfilt -l legacy -d 'Print older Rust names as paths'
complete -c symfilt -l ascii-words -d 'End words at bytes that are not ASCII'
complete -c symfilt -l press -d 'Spell each symbol with its repeated parts as references'
complete -c symfilt -s h -l help -d 'Print the options'
complete -c symfilt -s V -l version -d 'Print the version'
