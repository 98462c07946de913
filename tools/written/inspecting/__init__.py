"""What tools/inspect is made of: things in the five texts that `pdn build` draws as it is told and that a designer would want refused."""
