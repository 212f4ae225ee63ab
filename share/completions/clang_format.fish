# Completion of clang_format's words for fish.

# Whether a word may still come, since each stands once, or, of one that takes a value, whether that comes now.
function __clang_format_may -a word value
    set -l words (commandline -opc)
    test -n "$value" -a "$words[-1]" = $word; or not string match -q -r -- "^$word(=|\$)" $words
end

function __clang_format_styles
    printf '%s\t%s\n' \
        LLVM '80 columns, levels of 2' \
        Google '80 columns, levels of 2, short branches on one row' \
        WebKit 'no limit of columns, levels of 4' \
        Mozilla '80 columns, levels of 2, braces of functions on rows of their own' \
        Microsoft '120 columns, levels of 4, braces on rows of their own' \
        file '.clang-format of the working folder, or LLVM' \
        file: 'the configuration at a path'
    set -l path (string replace -r -- '^(--style=)?file:' '' (commandline -ct))
    and for found in (__fish_complete_path $path)
        echo file:$found
    end
end

complete -c clang_format -n '__clang_format_may --style VALUE' -l style -x -a '(__clang_format_styles)' -d 'The style'
complete -c clang_format -n '__clang_format_may --lines VALUE' -l lines -x -d 'The lines to lay out, as 1:3,10:20'
complete -c clang_format -n '__clang_format_may --states VALUE' -l states -x -d 'The budget of a line, in cells'
complete -c clang_format -n '__clang_format_may -i' -s i -d 'Write each file back'
complete -c clang_format -n '__clang_format_may --dry-run' -l dry-run -d 'Write nothing, tell what would change'
complete -c clang_format -n '__clang_format_may --Werror' -l Werror -d 'With --dry-run, tell by the status'
complete -c clang_format -n '__clang_format_may --dump-config' -l dump-config -d 'Write the style in force'
complete -c clang_format -n '__clang_format_may --generate VALUE' -l generate -x -d 'Make an input, as 5:100'
