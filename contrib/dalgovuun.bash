# Completions of dalgovuun for bash. Made by contrib/completions, from what `--help` names.
_dalgovuun() {
    local current=${COMP_WORDS[COMP_CWORD]} before=${COMP_WORDS[COMP_CWORD - 1]} options
    if [ "$COMP_CWORD" -eq 1 ]; then
        mapfile -t COMPREPLY < <(compgen -W 'format dump edit update pull recover verify serve talk help --help --version' -- "$current")
        return
    fi
    case $before in
    --algorithm) mapfile -t COMPREPLY < <(compgen -W 'sha256 sha512' -- "$current"); return ;;
    --journal) mapfile -t COMPREPLY < <(compgen -f -- "$current"); return ;;
    --table-file) mapfile -t COMPREPLY < <(compgen -f -- "$current"); return ;;
    --to-file) mapfile -t COMPREPLY < <(compgen -f -- "$current"); return ;;
    --cache | --data-block-size | --data-blocks | --data-cache | --hash-block-size | --hash-offset | --idle | --listen | --memory | --name | --salt | --sessions | --slice | --stall | --table | --timeout | --to | --uuid) return ;;
    esac
    case ${COMP_WORDS[1]} in
    format) options='--salt --uuid --data-blocks --data-block-size --hash-block-size --algorithm --hash-offset --slice --join --table-file --quiet --help' ;;
    dump) options='--hash-offset --help' ;;
    edit) options='--hash-offset --table --table-file --journal --quiet --help' ;;
    update) options='--hash-offset --table --table-file --journal --timeout --quiet --help' ;;
    pull) options='--to --to-file --table --table-file --uuid --hash-offset --timeout --quiet --help' ;;
    recover) options='--journal --table-file --help' ;;
    verify) options='--table --table-file --slice --timeout --quiet --help' ;;
    serve) options='--table --table-file --listen --name --cache --data-cache --sessions --memory --idle --stall --timeout --help' ;;
    talk) options='--table --table-file --name --cache --data-cache --timeout --help' ;;
    *) options= ;;
    esac
    case $current in
    -*) mapfile -t COMPREPLY < <(compgen -W "$options" -- "$current") ;;
    *) mapfile -t COMPREPLY < <(compgen -f -- "$current") ;;
    esac
}
complete -o filenames -F _dalgovuun dalgovuun
