"""What is promised of traces. Each promise is checked by itself, only from a trace's text and its scenario. No rule of
a tick is used."""
