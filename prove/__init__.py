"""The implementation of ./a2lab prove. It writes the promises in the comments of a source as statements with their proofs, and the Rattle
kit checks these.
"""
