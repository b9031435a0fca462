"""The panel of a street in the browser: what each cabinet shows, switches, and what management software asks."""
