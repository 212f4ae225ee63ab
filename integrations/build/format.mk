# Targets for GNU make: `make format` formats the C files of the tree, `make format-check` fails where formatting would
# change one. Goes, with format-tree beside it, anywhere in a project: `include tools/format.mk` in its Makefile.
CLANG_FORMAT ?= clang_format
# Which files, as git's pathspecs; all *.c and *.h where it is empty. For example '*.c' ':!third_party'
FORMAT_FILES ?=

format_goal := $(.DEFAULT_GOAL)
format_tree := $(abspath $(dir $(lastword $(MAKEFILE_LIST))))/format-tree

.PHONY: format format-check
format:
	@CLANG_FORMAT='$(CLANG_FORMAT)' '$(format_tree)' $(FORMAT_FILES)

format-check:
	@CLANG_FORMAT='$(CLANG_FORMAT)' '$(format_tree)' --check $(FORMAT_FILES)

# `make` alone makes what it made before.
.DEFAULT_GOAL := $(format_goal)
