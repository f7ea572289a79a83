"""The protocol by which units are asked (docs/howto/oracle.md): other units, and the proved one."""
