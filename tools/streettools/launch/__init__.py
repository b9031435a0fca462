"""What the launcher needs beside its shell: proving the program, running it without proofs, checksums, help."""
