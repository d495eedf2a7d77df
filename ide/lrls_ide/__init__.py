"""What stands behind the page in the browser (`lrls-playground`), and nothing else: the server of editors (`lrls-ide`) is made of the
repository's crates.

Nothing here is proved. What is said about a text comes from the core, `lrls serve`; these modules ask it, and put its answers
into the forms that the page knows.
"""
