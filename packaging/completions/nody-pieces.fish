# fish completion of nody-pieces(1)

complete -c nody-pieces -f
complete -c nody-pieces -l merge -d 'take one byte at a time, and write no offsets'
complete -c nody-pieces -x -l ends -d 'take a piece from the front for each F, and from the back for each B'
