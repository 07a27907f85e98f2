# Completion of stmflash, stmflash-line and stmflash-trial for bash.

_stmflash_files() { mapfile -t COMPREPLY < <(compgen -f -- "$1"); }
_stmflash_folders() { mapfile -t COMPREPLY < <(compgen -d -- "$1"); }
_stmflash_words() { mapfile -t COMPREPLY < <(compgen -W "$2" -- "$1"); }
_stmflash_ports() { mapfile -t COMPREPLY < <(compgen -G "$1*" | grep -E '^/dev/(tty(USB|ACM|AMA|S)|serial/)'); }

_stmflash() {
    local word=${COMP_WORDS[COMP_CWORD]} before=${COMP_WORDS[COMP_CWORD-1]} subcommand="" i
    local subcommands="info read crc write verify erase undo go protect log keep sim help"
    local device="--table --device --journal --journals --no-lock --trust-journal --wait --baud --stop --give-up --progress --quiet --watch --json --help"
    local asked="$device --board --no-board"
    COMPREPLY=()
    for ((i = 1; i < COMP_CWORD; i++)); do
        if [[ " $subcommands " == *" ${COMP_WORDS[i]} "* ]]; then
            subcommand=${COMP_WORDS[i]}
            break
        fi
    done
    case $before in
        --table | --journal | --flash | --socket | --keep-to) _stmflash_files "$word"; return ;;
        --journals) _stmflash_folders "$word"; return ;;
        --mode) _stmflash_words "$word" "600 660 666"; return ;;
        --device)
            _stmflash_files "$word"
            [[ sim: == "$word"* ]] && COMPREPLY+=(sim:)
            return ;;
        --baud) _stmflash_words "$word" "9600 19200 38400 57600 115200"; return ;;
        --wait | --stop | --give-up | --board | --id | --unique | --size | --protected | --clients | -S | --go | --again | --last) return ;;
    esac
    if [[ $word != -* ]]; then
        case $subcommand in
            "" | help) _stmflash_words "$word" "$subcommands" ;;
            protect) _stmflash_words "$word" "write-unprotect readout-protect readout-unprotect" ;;
            read | write | verify | keep) _stmflash_files "$word" ;;
        esac
        return
    fi
    case $subcommand in
        "") _stmflash_words "$word" "--help --version -h -V" ;;
        help) ;;
        info) _stmflash_words "$word" "$asked --raw -h" ;;
        read) _stmflash_words "$word" "$asked -S --hex --skip-blank -h" ;;
        crc) _stmflash_words "$word" "$asked -S -h" ;;
        write) _stmflash_words "$word" "$asked -f -v -S --keep --keep-to --go --again -h" ;;
        verify) _stmflash_words "$word" "$asked -f -S -h" ;;
        erase) _stmflash_words "$word" "$asked --all -h" ;;
        undo) _stmflash_words "$word" "$asked -v --to-change --recover -h" ;;
        go) _stmflash_words "$word" "$asked -h" ;;
        protect) _stmflash_words "$word" "$asked --yes --in-session -h" ;;
        log) _stmflash_words "$word" "--journal --check --json --help -h" ;;
        keep) _stmflash_words "$word" "--journal --no-lock --trust-journal --last --json --help -h" ;;
        sim) _stmflash_words "$word" "--table --id --flash --unique --size --protected --readout-protection --no-lock --socket --clients --mode --help -h" ;;
    esac
}

_stmflash_line() {
    local word=${COMP_WORDS[COMP_CWORD]} before=${COMP_WORDS[COMP_CWORD-1]} i
    COMPREPLY=()
    for ((i = 1; i < COMP_CWORD; i++)); do
        if [[ ${COMP_WORDS[i]} == -- ]]; then
            # what follows is a command of its own
            COMP_WORDS=("${COMP_WORDS[@]:i+1}")
            COMP_CWORD=$((COMP_CWORD - i - 1))
            case $COMP_CWORD:${COMP_WORDS[0]##*/} in
                0:*) mapfile -t COMPREPLY < <(compgen -c -- "$word") ;;
                *:stmflash) _stmflash ;;
                *:stmflash-trial) _stmflash_trial ;;
                *) _stmflash_files "$word" ;;
            esac
            return
        fi
    done
    case $before in
        --socket) _stmflash_files "$word"; return ;;
        --baud) _stmflash_words "$word" "9600 19200 38400 57600 115200"; return ;;
        --wiring) _stmflash_words "$word" "dtr-reset,rts-boot0 rts-reset,dtr-boot0 dtr-reset rts-reset inverted-"; return ;;
        --boot | --after | --idle | --gpio-chip) return ;;
    esac
    if [[ $word == -* ]]; then
        _stmflash_words "$word" "--baud --wiring --boot --resets --after --gpio-chip --idle --watch --socket --help -h --"
    else
        _stmflash_ports "${word:-/dev/tty}"
    fi
}

_stmflash_trial() {
    local word=${COMP_WORDS[COMP_CWORD]} before=${COMP_WORDS[COMP_CWORD-1]}
    local where="--device --port --wiring --baud --table --pages --skip --save --out --part --reset --wait --pause"
    COMPREPLY=()
    case $before in
        --device | --table | --save | --out) _stmflash_files "$word"; return ;;
        --port) _stmflash_ports "${word:-/dev/tty}"; return ;;
        --baud) _stmflash_words "$word" "9600 19200 38400 57600 115200"; return ;;
        --wiring) _stmflash_words "$word" "dtr-reset,rts-boot0 rts-reset,dtr-boot0 dtr-reset rts-reset inverted-"; return ;;
        --pages | --skip | --part | --reset | --wait | --pause) return ;;
    esac
    _stmflash_words "$word" "$where --map --every-byte --patient --only-read --yes --progress --quiet --speeds --rows --help -h"
}

complete -o filenames -F _stmflash stmflash
complete -o filenames -F _stmflash_trial stmflash-trial
complete -o filenames -F _stmflash_line stmflash-line
