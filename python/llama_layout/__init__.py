"""Tables of whole numbers whose layout in memory is a text, over libllama_layout. README.md shows the way in."""
from .calls import Answer, Refused
from .view import View

__all__ = ['Answer', 'Refused', 'View']
