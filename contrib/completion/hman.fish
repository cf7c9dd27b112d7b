# For: sections, names of pages and options of hman, completed in fish.
# Needs: fish 3, hman in the path.
# Use: `make install` puts it where fish finds it; or ~/.config/fish/completions
function __hman_names
    set -l before (commandline -opc)[-1]
    set -l section ''
    if string match -q '*/*' -- (commandline -ct)
        __fish_complete_path (commandline -ct)
        return
    end
    if string match -qr '^([0-9nl]|[0-9][a-z].*)$' -- $before
        set section $before
    else
        string join \n 1 2 3 4 5 6 7 8 9
    end
    test "$before" = -s; and return
    set -l first (string sub -l 1 -- $section)
    for folder in (string split : -- (hman -w 2> /dev/null))
        set -l files $folder/man$first*/*.$section*
        string replace -r '.*/' '' -- $files | string replace -r '\.(gz|xz|bz2|zst)$' '' | string replace -r '\.[^.]*$' ''
    end
end
complete -c hman -f -a '(__hman_names)'
complete -c hman -r -F -s l -l local-file -d 'pages in files'
complete -c hman -x -s M -d 'folders of pages' -a '(__fish_complete_directories)'
complete -c hman -x -s O -d 'measures of rows' -a 'width= indent='
complete -c hman -x -s P -d 'the pager'
complete -c hman -f -s V -l version -d 'the version'
complete -c hman -f -s a -d 'all pages of a name'
complete -c hman -f -s w -d 'files in place of pages'
complete -c hman -f -s k -d 'search names and descriptions'
complete -c hman -f -s f -d 'what has a name'
complete -c hman -f -s s -d 'section' -x -a '1 2 3 4 5 6 7 8 9'
