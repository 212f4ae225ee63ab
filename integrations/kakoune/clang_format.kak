# Formats C with clang_format. Goes to ~/.config/kak/autoload/, or its lines to ~/.config/kak/kakrc.
# `:format` formats the buffer, in the style of the nearest .clang-format above Kakoune's working folder, or there.
hook global WinSetOption filetype=c %{
    set-option window formatcmd %{until [ -e .clang-format ] || [ "$PWD" = / ]; do cd ..; done; clang_format}
    # Where each save is to format: hook -group clang-format buffer BufWritePre .* format
}
