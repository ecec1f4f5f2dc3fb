# fish completion of nody-recode(1)

complete -c nody-recode -f -a 'utf8 utf16le utf16be' -d encoding
