"""Sessions: experiments that your own program drives."""
