"""A street of live cabinets: agents over UDP, and a panel in the browser, over one session of the program.
`./arterial street` is the command."""
