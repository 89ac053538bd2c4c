# Bash completion for the commands and options of hls_origin and its tools, from their own help texts. Any other word completes to a
# channel of this machine or, if none matches, to a file. Nothing here is to be changed for a site.

_hls() {
    local word=${COMP_WORDS[COMP_CWORD]} tool=${COMP_WORDS[0]##*/} command=${COMP_WORDS[1]-} words
    case $tool,$COMP_CWORD,$command,$word in
        hls_origin,1,*) words="cut check lint explain serve size journal help --help --version" ;;
        hls_origin,*,explain,*) words=$(hls_origin explain) ;;
        # the options in the help's section of the command; size takes those of serve
        hls_origin,*,-*) words=$(hls_origin --help | awk -v part="${command/size/serve}:" '/^[a-zA-Z]/ { on = $1 == part } on && /^  --/ { print $1 }') ;;
        hls_origin,*) words= ;;
        *,-*) words=$("$tool" --help 2> /dev/null | grep -oE -- '--[a-z][a-z-]+' | sort -u) ;;
        hls_channel,1,*) words=$(hls_channel --help 2> /dev/null | awk '$1 == "hls_channel" { print $2 }') ;;
        *) words=$(find /etc/hls_origin -maxdepth 1 -name '*.conf' -printf '%f\n' 2> /dev/null | sed 's/\.conf$//') ;;
    esac
    mapfile -t COMPREPLY < <(compgen -W "$words" -- "$word")
} && complete -o default -F _hls hls_archive hls_channel hls_ingest hls_origin hls_programme
