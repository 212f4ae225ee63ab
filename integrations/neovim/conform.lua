-- Formats C with clang_format by the plugin conform.nvim (stevearc/conform.nvim). Goes to init.lua, behind the plugin.
-- Without a plugin manager use ../vim/clang_format.vim, which works in Neovim too.
require("conform").setup({
  formatters_by_ft = { c = { "clang_format_c" } },
  formatters = {
    clang_format_c = {
      command = "clang_format",
      stdin = true,
      -- The program takes the .clang-format of its working folder.
      cwd = require("conform.util").root_file({ ".clang-format" }),
      range_args = function(_, context)
        return { "--lines", context.range.start[1] .. ":" .. context.range["end"][1] }
      end,
    },
  },
  format_on_save = { timeout_ms = 2000, lsp_format = "never" },
})
