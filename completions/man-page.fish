# Completion of man-page for fish: its words, names of pages by section, files.
function __man_page_names
    set -l word (commandline -ct)
    if string match -q '*/*' -- $word
        __fish_complete_path $word
        return
    end
    set -l section (string match -r '^(?:[0-9][a-z]*|n|l)$' -- (commandline -opc))[-1]
    if set -q section[1]
        man-page -s $section --names -- $word 2>/dev/null | string replace -r '\((.*)\)$' '\t$1'
    else
        man-page --names -- $word 2>/dev/null | string replace -r '\((.*)\)$' '\t$1'
    end
end
complete -c man-page -f -a '(__man_page_names)'
complete -c man-page -s a -l all -d 'all pages of a name'
complete -c man-page -s w -l where -d 'print where the pages are'
complete -c man-page -s l -l local-file -F -d 'all words are files'
complete -c man-page -s s -l sections -x -a '1 2 3 4 5 6 7 8' -d 'the sections to look in'
complete -c man-page -s M -l manpath -x -a '(__fish_complete_directories)' -d 'the folders of pages'
complete -c man-page -s m -l systems -x -d 'pages of another system'
complete -c man-page -s L -l locale -x -d 'pages in the language of a locale'
complete -c man-page -s P -l pager -x -a '(__fish_complete_command)' -d 'the pager'
complete -c man-page -s r -l prompt -x -d 'the prompt of less'
complete -c man-page -s O -l option -x -d 'what a page says of an option'
complete -c man-page -s i -l ignore-case -d 'names match in any case'
complete -c man-page -s I -l match-case -d 'names match as they are written'
complete -c man-page -s k -l apropos -d 'search descriptions'
complete -c man-page -s f -l whatis -d 'descriptions of names'
complete -c man-page -s K -l global-apropos -d 'pages that have a word in their text'
complete -c man-page -s 7 -l ascii -d 'spell all characters in ASCII'
complete -c man-page -l faces -d 'keep bold and underlining'
complete -c man-page -l links -d 'addresses and pages are links'
complete -c man-page -l sgr -d 'bold and underlining by escape sequences'
complete -c man-page -l warnings -d 'tell what is wrong in a page'
complete -c man-page -l no-subpages -d 'words are names of their own'
complete -c man-page -l limits -d 'print the limits'
complete -c man-page -l names -d 'print all pages'
complete -c man-page -l version -d 'print the version'
complete -c man-page -l help -d 'print the words'
