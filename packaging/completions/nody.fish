# fish completion of nody(1)

# The word after nody is the command.
function __nody_is
    set -l words (commandline -opc)
    test (count $words) -ge 2; and contains -- $words[2] $argv
end

function __nody_is_first
    test (count (commandline -opc)) -eq 1
end

set -l encodings 'utf-8 utf-16le utf-16be'
complete -c nody -n __nody_is_first -f
complete -c nody -n __nody_is_first -a check -d 'say whether files are valid, and where they are not'
complete -c nody -n __nody_is_first -a fix -d 'replace invalid bytes in files'
complete -c nody -n __nody_is_first -a view -d 'show a text of any size on the terminal'
complete -c nody -n __nody_is_first -a list -d 'write a line for each character and each invalid byte'
complete -c nody -n __nody_is_first -a count -d 'count bytes, characters, lines and invalid bytes'
complete -c nody -n __nody_is_first -a at -d 'show what lies at an offset, and around it'
complete -c nody -n __nody_is_first -a recode -d 'convert to another encoding'
complete -c nody -n __nody_is_first -l version -d 'say which version it is'
complete -c nody -s h -l help -d 'say how it is used'
complete -c nody -n '__nody_is check fix view list count at recode' -x -l encoding -a "$encodings auto" -d 'the encoding of the input'
complete -c nody -n '__nody_is check fix list count recode' -s q -l quiet -d 'show no progress, and say less'
complete -c nody -n '__nody_is check list count at' -l json -d 'write an object of JSON on each line'
complete -c nody -n '__nody_is check fix count recode' -x -l jobs -d 'use N threads'
complete -c nody -n '__nody_is check at' -x -l columns -a 'characters bytes display' -d 'count columns in this unit'
complete -c nody -n '__nody_is check fix view' -x -l color -a 'auto always never' -d 'use colours'
complete -c nody -n '__nody_is check' -s l -l names -d 'write only the names of invalid files'
complete -c nody -n '__nody_is check' -s 0 -l null -d 'end each name with a NUL'
complete -c nody -n '__nody_is check' -s r -l recursive -d 'go into folders'
complete -c nody -n '__nody_is check' -r -F -l files0-from -d 'take the names of the files from a list'
complete -c nody -n '__nody_is check' -x -l exclude -d 'pass over files and folders with such a name'
complete -c nody -n '__nody_is check' -s a -l text -d 'take a binary file for text'
complete -c nody -n '__nody_is check' -s v -l verbose -d 'name valid files too'
complete -c nody -n '__nody_is check' -x -l max -d 'show at most N invalid bytes of a file'
complete -c nody -n '__nody_is check' -l context -d 'show the line with each invalid byte'
complete -c nody -n '__nody_is check' -l no-context -d 'do not show it'
complete -c nody -n '__nody_is check' -l follow -d 'wait for what is added to the files'
complete -c nody -n '__nody_is fix' -x -l errors -a 'replace lossy drop windows-1252 latin1' -d 'what to do with invalid bytes'
complete -c nody -n '__nody_is fix' -x -l backup -d 'keep the old file under its name with this suffix'
complete -c nody -n '__nody_is fix' -l dry-run -d 'show the lines that would change'
complete -c nody -n '__nody_is recode' -x -l to -a "$encodings" -d 'the encoding of the output'
complete -c nody -n '__nody_is recode' -x -l errors -a 'replace lossy drop windows-1252 latin1 strict' -d 'what to do with invalid bytes'
complete -c nody -n '__nody_is recode' -l bom -d 'begin the output with a byte order mark'
complete -c nody -n '__nody_is recode' -r -F -s o -l output -d 'write to this file'
complete -c nody -n '__nody_is recode' -l in-place -d 'replace each file by what it becomes'
