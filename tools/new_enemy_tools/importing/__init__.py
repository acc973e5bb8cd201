"""From the logs of a service to a trace: neutral events, the core that takes them, and a front end for each service."""
