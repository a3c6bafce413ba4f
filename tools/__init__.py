"""The scripts behind ./play: they run the program, and show people what it says. Nothing here is proved."""
