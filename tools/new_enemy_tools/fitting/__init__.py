"""Whether the recorder fits a service: a scratch place in it, a load that passes the recorder, and what its log has of that."""
