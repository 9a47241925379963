"""What the scripts share: reading real data, making documents, running the program.

Nothing here decides which text a request gets. That is the proved program's; these modules
hand it documents and pass on what it answers.
"""
