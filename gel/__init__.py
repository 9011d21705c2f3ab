"""The language `gel`: definitions written for people. docs/gel.md describes it."""
