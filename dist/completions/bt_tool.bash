# Completions of bt_tool for bash, made from its --help.
_bt_tool() {
    local word=${COMP_WORDS[COMP_CWORD]} before=${COMP_WORDS[COMP_CWORD - 1]} options values=
    COMPREPLY=()
    case ${COMP_WORDS[1]} in
    show) options='--reserved --pieces --metadata-id --donthave-id --info-hash --other --rules --limit --hints --json --help' ;;
    check) options='--reserved --pieces --metadata-id --donthave-id --info-hash --other --rules --limit --hints --help' ;;
    unpack) options='--reserved --pieces --metadata-id --donthave-id --info-hash --other --rules --limit --hints --help' ;;
    pack) options='--reserved --pieces --metadata-id --donthave-id --info-hash --other --rules --limit --hints --help' ;;
    link) options='--help' ;;
    capture) options='--pieces --torrent --limit --show --stream --json --only --strict-status --help' ;;
    loop) options='--rules --limit --help' ;;
    fetch) options='--peers --at-once --rules --limit --timeout --window --max-size --torrent --json --tracker --no-trackers --no-dht --local --help' ;;
    peers) options='--tracker --no-trackers --no-dht --local --help' ;;
    serve) options='--listen --rules --limit --timeout --exit-after --max-connections --help' ;;
    *) options='--help --version' ;;
    esac
    if [ "$COMP_CWORD" = 1 ]; then
        values='show check unpack pack link capture loop fetch peers serve'
    fi
    case $before in
    --rules) values='free bep' ;;
    --hints) values='always never auto' ;;
    --reserved | --pieces | --metadata-id | --donthave-id | --info-hash | --limit | --stream | --only | --at-once | --timeout | --window | --max-size | --tracker | --listen | --exit-after | --max-connections) return ;;
    esac
    case $word in
    -*) values=$options ;;
    esac
    COMPREPLY=($(compgen -W "$values" -- "$word"))
}
complete -o default -F _bt_tool bt_tool
