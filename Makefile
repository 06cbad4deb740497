# The commands; `make help` has a line on each. Names of files reach the scripts by the environment, so that no byte of
# them is read by the shell.
.PHONY: help run sign book desk lib test fuzz
SEED ?= 2
COUNT ?= 10000
help:
	@echo 'make run [BOOK=file]                 proves the printer and prints a book, or the shipped one; ends well wherever a verdict was had'
	@echo 'make sign BOOK=file                  prints the same, and fails unless every entry is SAME: what a build calls'
	@echo 'make book ROW=XY FILE=text OUT=file  a book from a text of formulas, panel and cloud in turn'
	@echo 'make desk                            proves the desk and answers each line of standard input'
	@echo 'make lib                             proves the calls for C and writes target/staticlib/libpanel.a'
	@echo 'make test                            the gate: all proofs and all tests; its last line is `N passed, 0 failed`'
	@echo 'make fuzz [SEED=n] [COUNT=n]         fresh request lines and books through the proved programs and second/'
run:
	@bash tools/print-book.sh "$${BOOK-crates/printer/stdin}" || [ $$? -le 2 ]
sign:
	@bash tools/print-book.sh "$${BOOK?name the book: make sign BOOK=file}" || \
		{ status=$$?; echo 'not signed: every entry has to be SAME' >&2; exit $$status; }
book:
	@bash tools/book.sh "$${ROW?the row: ROW=XY}" "$${FILE?the formulas: FILE=text}" "$${OUT?the book: OUT=file}"
desk:
	@bash tools/desk.sh
lib:
	@bash tools/library.sh
test:
	@bash .ci/run
fuzz:
	@bash tools/prove.sh desk printer
	@bash tools/against-second.sh "$(SEED)" "$(COUNT)"
