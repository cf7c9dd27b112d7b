# For: sections, names of pages and options of hman, completed in bash.
# Needs: bash 4.4, hman in the path, sed, sort.
# Use: `make install` puts it where bash-completion finds it; or `. hman.bash` in ~/.bashrc
_hman() {
    local word=${COMP_WORDS[COMP_CWORD]} at=$COMP_CWORD before prefix section='' folder folders
    # (bash parts a name as File::Temp at its colons, and puts what is in front of them before each completion)
    while ((at > 1)) && [[ $word == :* || ${COMP_WORDS[at - 1]} == *: ]]; do
        word=${COMP_WORDS[--at]}$word
    done
    before=${COMP_WORDS[at - 1]}
    case $before in
    -l | -M | -O | -P) return ;;
    [0-9nl] | [0-9][a-z]*) section=$before ;;
    esac
    case $word in
    */*) return ;;
    -*) mapfile -t COMPREPLY < <(compgen -W '-a -f -h -k -l -M -O -P -s -V -w' -- "$word"); return ;;
    esac
    IFS=: read -ra folders < <(hman -w 2> /dev/null)
    mapfile -t COMPREPLY < <(
        [[ $section ]] || compgen -W '1 2 3 4 5 6 7 8 9' -- "$word"
        [[ $before == -s ]] || for folder in "${folders[@]}"; do
            compgen -G "$folder/man${section:0:1}*/$(printf %q "$word")*.$section*"
        done | sed -e 's,.*/,,' -e 's/\.\(gz\|xz\|bz2\|zst\)$//' -e 's/\.[^.]*$//' | sort -u
    )
    prefix=${word%"${word##*:}"}
    [[ $COMP_WORDBREAKS != *:* ]] || COMPREPLY=("${COMPREPLY[@]#"$prefix"}")
}
complete -o default -F _hman hman
