# Completions of agep for fish: commands, options and files. ./generate writes
# what has marks.
# generated: commands of fish
complete -c agep -n __fish_use_subcommand -f -a encrypt -d 'Encrypt a file with a passphrase or a key'
complete -c agep -n __fish_use_subcommand -f -a decrypt -d 'Decrypt a file with a passphrase or a key'
complete -c agep -n __fish_use_subcommand -f -a inspect -d 'Show what the header of an age file holds'
complete -c agep -n __fish_use_subcommand -f -a range -d 'Decrypt part of a file'
complete -c agep -n __fish_use_subcommand -f -a rewrap -d 'Change the passphrase or keys without encrypting again'
complete -c agep -n __fish_use_subcommand -f -a salvage -d 'Save what is left of a damaged file'
# end of commands of fish
complete -c agep -n __fish_use_subcommand -f -a help -d 'Print help'
complete -c agep -s h -l help -d 'Print help'
complete -c agep -s V -l version -d 'Print version'
# generated: words of help of fish, one line
complete -c agep -n '__fish_seen_subcommand_from help' -f -a 'encrypt decrypt inspect range rewrap salvage'

# generated: options of fish
complete -c agep -n '__fish_seen_subcommand_from encrypt decrypt range rewrap salvage' -s p -l passphrase -r -F -d 'File with the passphrase, at most 65536 bytes'
complete -c agep -n '__fish_seen_subcommand_from encrypt decrypt range rewrap salvage' -s k -l key -r -F -d 'File with a key of 32 bytes'
complete -c agep -n '__fish_seen_subcommand_from encrypt rewrap' -s w -l work -x -d 'Work factor of the passphrase, 1 to 30'
complete -c agep -n '__fish_seen_subcommand_from encrypt' -s s -l seed -r -F -d 'File whose first 48 bytes become file key, nonce and salt'
complete -c agep -n '__fish_seen_subcommand_from encrypt decrypt inspect range rewrap salvage' -s H -l max-header -x -d 'Largest header to read or write, in bytes, 1024 to 16777216'
complete -c agep -n '__fish_seen_subcommand_from encrypt decrypt range rewrap salvage' -s o -l output -r -F -d 'File to write instead of standard output'
complete -c agep -n '__fish_seen_subcommand_from encrypt decrypt range rewrap salvage' -s n -l no-clobber -d 'Refuse an OUT that exists'
complete -c agep -n '__fish_seen_subcommand_from encrypt decrypt range rewrap salvage' -l atomic -d 'Replace OUT only after success, or by what salvage saved'
complete -c agep -n '__fish_seen_subcommand_from encrypt decrypt inspect range rewrap salvage' -s v -l verbose -d 'Explain an error on a second line (which file, why)'
complete -c agep -n '__fish_seen_subcommand_from decrypt range rewrap salvage' -s m -l max-work -x -d 'Largest work factor to accept, 1 to 30'
complete -c agep -n '__fish_seen_subcommand_from decrypt' -s d -l decrypt -d 'Does nothing'
complete -c agep -n '__fish_seen_subcommand_from inspect' -s r -l raw -d 'Print the header itself instead of a table'
complete -c agep -n '__fish_seen_subcommand_from inspect' -s f -l file-key -r -F -d 'File with the file key, 16 bytes, under which to check the header\'s MAC'
complete -c agep -n '__fish_seen_subcommand_from rewrap' -s P -l new-pass -r -F -d 'File with the new passphrase, at most 65536 bytes'
complete -c agep -n '__fish_seen_subcommand_from rewrap' -s K -l new-key -r -F -d 'File with a new key of 32 bytes'
complete -c agep -n '__fish_seen_subcommand_from rewrap' -s s -l seed -r -F -d 'File of at least 48 bytes'
# end of options of fish
