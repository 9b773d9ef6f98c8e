"""The comparison of the three programs with the independent second program, on generated inputs."""
