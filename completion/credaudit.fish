# Completion of fish for credaudit and the commands around it: the names of commands, files, and the beginnings of
# rights; of the commands around it their options, as their own help has them.
function __credaudit_is_at --description 'whether the word to complete is one of these, counted from the command on'
    set -l words (commandline -opc)
    contains -- (count $words) $argv
end

function __credaudit_asks --description 'whether the command is one of these, and the word that many words behind it'
    set -l words (commandline -opc)
    contains -- "$words[2]" $argv[2..]; and __credaudit_is_at $argv[1]
end

function __credaudit_options --description 'the options that the help of a command has'
    $argv[1] --help 2>/dev/null | string match -rag -- '(?:^|[ ,[])(--?[a-z][a-z-]*)' | sort -u
end

for name in credaudit credaudit-audit
    complete -c $name -f
    complete -c $name -n '__credaudit_is_at 1' -a 'replay audit check confirm drill'
    complete -c $name -n '__credaudit_asks 2 replay audit check confirm' -F
    complete -c $name -n '__credaudit_asks 3 replay audit check confirm' -F
    complete -c $name -n '__credaudit_asks 5 audit check confirm' -a 'uid: gid: cap:CAP_'
    complete -c $name -n '__credaudit_asks 6 check confirm' -F
end

# The five words of the checker of certificates are those of `credaudit check`.
complete -c credaudit-check-certificate -f
complete -c credaudit-check-certificate -n '__credaudit_is_at 1 2 5' -F
complete -c credaudit-check-certificate -n '__credaudit_is_at 4' -a 'uid: gid: cap:CAP_'

for name in credaudit-trace credaudit-verify credaudit-capture credaudit-lint credaudit-summary credaudit-explain \
    credaudit-unit credaudit-timeline
    complete -c $name -n 'string match -q -- "-*" (commandline -ct)' -a "(__credaudit_options $name)"
end
