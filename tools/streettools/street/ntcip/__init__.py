"""A front for management software as it is: SNMP version 2c, the system group, NTCIP 1201's transactions, inputs as
objects. It is placed before the proved profile, and nothing of it is proved."""
