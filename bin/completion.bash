# Completion of dgt_live, dgt_round and dgt_replay for bash: their options, subcommands, sides, and files. The Debian package has
# it in its place. Elsewhere, in a shell or in ~/.bashrc:  . completion.bash

_dgt() {
    local command=${1##*/} word=${COMP_WORDS[COMP_CWORD]} before=${COMP_WORDS[COMP_CWORD - 1]} words=
    local game='--rotated --first --fen' tags='--date --round --white --black'
    local shown='--page --page-host --arbiter-page --delay --publish --hold --tag --recover --strict --help --version'
    COMPREPLY=()
    case $command,$before in
        *,--first) words='white black' ;;
        *,--fen | *,--event | *,--place | *,--site | *,--date | *,--round | *,--white | *,--black | *,--tag | *,--add | *,--back | *,--line | *,--to) return ;;
        *,--page | *,--page-host | *,--arbiter-page | *,--delay | *,--publish | *,--hold | *,--output | *,--encoding | *,--matches | *,--embed) return ;;
        dgt_live,*) words="--series --once --add --back --devices --pack $game --event --place $tags $shown" ;;
        dgt_round,*) words="--new --encoding --matches --embed --web --output --event --place --site --date --round $shown" ;;
        dgt_replay,*)
            if [ "$COMP_CWORD" -eq 1 ]; then
                words='record follow watch recover add back instead live show pictures check times moves positions help --help --version'
            else
                case ${COMP_WORDS[1]} in
                    record) words="$game --event --site $tags --help" ;;
                    follow | watch | recover) words="$game --help" ;;
                    add | instead) words="$game --recover --line --help" ;;
                    back) words="$game --recover --to --help" ;;
                    live) words="$game --event --site $tags --recover --help" ;;
                    pictures) words='--rotated --help' ;;
                    moves | positions) words='--fen --help' ;;
                    *) words='--help' ;;
                esac
            fi
            ;;
    esac
    if [ "$command" = dgt_replay ] || [ "${word#-}" != "$word" ] || [ "$before" = --first ]; then
        # shellcheck disable=SC2207  # no word has a blank
        COMPREPLY=($(compgen -W "$words" -- "$word"))
    fi
}

complete -o default -F _dgt dgt_live dgt_round dgt_replay
