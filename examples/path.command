matches edge
