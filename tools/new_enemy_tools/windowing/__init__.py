"""An audit in windows: a log that is audited stretch by stretch, each by what the one before left. docs/SCALE.md has the rules."""
