# make run   proves and builds the program, and runs the example job in examples/
# make try   runs the example job unproved, at once
# make ci    proves and tests everything

PROGRAM = crates/mosel/out/mosel
JOB = run hello.mos --lanes 1

.PHONY: run try ci program

run: program
	cd examples && ../$(PROGRAM) $(JOB)

# rt starts the program that it has proved and built, here without words: it answers its usage line.
program:
	@echo "Proving and building the program. The first time takes a while; afterwards only what has changed is done again."
	@test "$$(cd crates/mosel && rt run | tail -n 1)" = "mosel: usage"

try:
	@echo "UNPROVED: the program is compiled with checks at run time, and nothing is proved of it in this run."
	@echo "The image of the job is made in a folder of its own and not kept."
	cd crates/mosel && rt try --data hello.mos=../../examples/hello.mos -- $(JOB) < /dev/null

ci:
	bash .ci/run
