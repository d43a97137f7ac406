# Completion of strip122 for bash. tools/reference.sh makes it from what `strip122 help` prints.
_strip122() {
    local word=${COMP_WORDS[COMP_CWORD]} keys= key given
    COMPREPLY=()
    if [ "$COMP_CWORD" = 1 ]; then
        COMPREPLY=($(compgen -W "encode mux decode damage rects look list info pick bare-encode bare-decode make trial help version" -- "$word"))
        return
    fi
    case ${COMP_WORDS[1]} in
        encode) keys="width rows depth signed segment limit fill word stop weights select apid image packet total book" ;;
        mux) keys="width rows depth signed segment limit fill word stop weights select apid image packet total cameras" ;;
        decode) keys="apid pixels octets restore book" ;;
        damage) keys="apid pixels octets book" ;;
        rects) keys="apid pixels octets" ;;
        look) keys="apid pixels octets restore" ;;
        list) keys="apid octets" ;;
        info) keys="apid octets" ;;
        pick) keys="apid image octets" ;;
        bare-encode) keys="width rows depth signed segment limit fill word stop weights select" ;;
        bare-decode) keys="pixels octets restore" ;;
        make) keys="width rows depth signed seed" ;;
        trial) keys="width rows depth signed segment limit fill word stop weights select apid image packet total seed" ;;
        help)
            [ "$COMP_CWORD" = 2 ] && COMPREPLY=($(compgen -W "encode mux decode damage rects look list info pick bare-encode bare-decode make trial width rows depth signed seed limit total fill stop weights select segment word book apid cameras image packet pixels octets restore" -- "$word"))
            return
            ;;
    esac
    for key in $keys; do
        for given in "${COMP_WORDS[@]:2}"; do
            [ "$given" = "$key" ] && [ "$given" != "$word" ] && continue 2
        done
        [[ $key= == "$word"* ]] && COMPREPLY+=("$key=")
    done
    compopt -o nospace 2>/dev/null
}
complete -F _strip122 strip122
