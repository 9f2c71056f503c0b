# make test   proves every crate and runs every test; its last line counts them
#             only='stream seeded' runs a part, only=help lists the words
# make times  puts the figures of the last 'make test' into docs/PERFORMANCE.md
# make demo   builds, and shows the main job
# make bench  measures, prints the figures, and puts them into docs/PERFORMANCE.md and docs/speed.svg
# make fuzz   tries damaged inputs for a minute

.PHONY: test times demo bench fuzz

# Set here, so that a variable of the environment does not make a part of the gate.
only =

test:
	@tests/run $(only)

times:
	@tests/times

demo:
	@echo 'Proving and building the programs feeder and sheet and the C interface. Where nothing is proved yet this takes some'
	@echo 'minutes:'
	@tests/prove feeder sheet
	@tests/archive
	@echo 'A file locked and opened in pieces, and the sheet of its box:'
	@examples/feeder/run
	@echo 'A buffer locked and opened from C:'
	@examples/c/run

bench:
	@mkdir -p target
	@bench/run >target/speed.md || { cat target/speed.md; exit 1; }
	@cat target/speed.md
	@bench/record target/speed.md

fuzz:
	@tests/prove replay
	@tests/archive
	@fuzz/run 60
