# Completion of git2show for fish: put it into ~/.config/fish/completions.

set -l commands show check serve fetch play help
complete -c git2show -f
complete -c git2show -n "not __fish_seen_subcommand_from $commands" -a "$commands"
complete -c git2show -n "not __fish_seen_subcommand_from $commands" -s V -l version -d 'Print the version'
complete -c git2show -s h -l help -d 'Print the usage'

function __git2show_option
    complete -c git2show -n "__fish_seen_subcommand_from $argv[1]" $argv[2..]
end
__git2show_option show -l pretty -d 'Lines of columns'
__git2show_option show -l json -d 'A JSON object for each packet'
__git2show_option show -l plain -d 'Lines of text on a terminal too'
__git2show_option show -l width -x -d 'Columns of a line of --pretty'
__git2show_option show -l no-pack -d 'Leave out bytes of packs'
__git2show_option show -l from -x -d 'Leave out packets before this offset'
__git2show_option show -l only -x -a 'fetch ls-refs object-info bundle-uri' -d 'Requests with this command'
__git2show_option show -l trace -d 'A text of GIT_TRACE_PACKET'
for command in check fetch
    __git2show_option $command -l format -x -a 'sha1 sha256' -d 'Object format'
end
for command in check fetch play
    __git2show_option $command -l stateless -d 'Each response ends with a response-end packet'
end
__git2show_option check -l explain -d 'Show the packets up to the refused one'
__git2show_option check -l pretty -d 'The packets of both files in columns'
__git2show_option check -l width -x -d 'Columns of a line of --pretty'
__git2show_option check -l no-pack -d 'Leave out bytes of packs'
__git2show_option check -F
for command in serve play
    __git2show_option $command -l repo -r -F -d 'Text of the references and objects'
    __git2show_option $command -l filtered -r -F -d 'Pack for answers to a fetch with a filter'
end
for command in serve fetch play
    __git2show_option $command -l pack -r -F -d 'Pack'
end
__git2show_option serve -l limit -x -d 'Bytes of a request'
__git2show_option serve -l stateless-rpc -d 'Answer one request'
__git2show_option serve -l http-backend-info-refs -d 'The advertisement alone'
__git2show_option serve -l advertise-refs -d 'The advertisement alone'
for command in fetch play
    __git2show_option $command -l script -r -F -d 'Text of the requests'
end
__git2show_option fetch -l transcript -r -F -d 'Where the transcript goes'
__git2show_option fetch -l progress -d 'Show the progress'
__git2show_option fetch -l server-option -x -d 'Send this with each request'
__git2show_option play -l cut -x -d 'Bytes of a chunk'
__git2show_option serve -a '(__fish_complete_directories)'
__git2show_option help -a 'show check serve fetch play'
functions -e __git2show_option
