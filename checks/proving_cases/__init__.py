"""The cases of `checks/proving`, and the small repository that they are tried on."""
