# make run: build the main program and run it: a day's records handed over, the bill and the service sheet
# make test: the whole gate

.PHONY: run test bench

run:
	@tools/run handover

test:
	@.ci/run

# make bench: the ciphers and the keyed suite measured beside mbedTLS and OpenSSL, outside the gate
bench:
	@bench/run
