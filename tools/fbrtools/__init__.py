"""What the companions of fbr share: the text of fbr as a model, XML of IEC 61499-2, and the way between the two."""
