# A step of a flow: make -f examples/signoff.mk BIAS=bias OUT=signed
# The stamp is the only target, and is written last: status 1 of build writes all outputs, and a refusal leaves those of an earlier run.
PDN = bin/pdn
D = examples/small-design
BIAS = $(D)/bias
OUT = signed

$(OUT)/ok: $(D)/technology.lef $(D)/cells.lef $(D)/design.def $(D)/grid.pdn $(BIAS)
	@mkdir -p $(OUT) && rm -f $@
	@$(PDN) build --lef $(D)/technology.lef --cells $(D)/cells.lef --def $(D)/design.def --pdn $(D)/grid.pdn --bias $(BIAS) \
	  --out-def $(OUT)/def --netlist $(OUT)/net --certificate $(OUT)/cert --report $(OUT)/report > $(OUT)/line; s=$$?; cat $(OUT)/line; exit $$s
	@grep -q ' 0 unlimited ' $(OUT)/line
	@$(PDN) check --netlist $(OUT)/net --certificate $(OUT)/cert
	@touch $@
