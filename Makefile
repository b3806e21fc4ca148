# make test: the gate, then a short comparison with the unchanged Rust, then the bindings. make ticket: a ticket painted and patched
# through a settling weight, as pictures. make edits: the edits that must fail, alone.
# make compare: the comparison at scale, in minutes. make shapes, make sheets, make patches, make orders, make panels: of the
# shapes, of painting sheets, of lists of patches, of every small clip order, of the panel's registers alone. make bench: speed
# beside the Rust, its tables printed and written to target/bench.md. make performance: the same, and the tables put into
# docs/PERFORMANCE.md.
.PHONY: test ticket edits compare shapes sheets patches orders panels bench performance

test:
	@bash tools/test

ticket:
	@bash tools/ticket

edits:
	@bash tools/edits

compare:
	@bash oracle/compare

shapes:
	@bash oracle/compare shapes

sheets:
	@bash oracle/compare sheets

patches:
	@bash oracle/compare patches

orders:
	@bash oracle/compare orders

panels:
	@bash oracle/compare panels

bench:
	@bash oracle/bench

performance:
	@bash oracle/bench document
