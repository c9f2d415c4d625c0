# demo: proves what the programs need, then runs them on the examples that stand beside them
# replay: plays the recorded run that stands beside the program
# test: the gate
.PHONY: demo replay test

play = cd crates/$(1) && mkdir -p out && { rt run < stdin 2> out/run.log || { tail -20 out/run.log; exit 1; }; }

demo:
	@echo "== recorded frames, taken apart (crates/inspect/stdin) =="
	@$(call play,inspect)
	@echo
	@echo "== a day of orders (crates/orders/stdin) =="
	@$(call play,orders)

replay:
	@$(call play,replay)

test:
	@.ci/run
