"""The form of use_signup in Flask with WTForms: signup_flask.py BODY COUNT answers so many posts of this body, and prints the last status.
It has the same fields and rules, and a page with each message in a list above the form and beside its field."""
import io
import pathlib
import sys

from flask import Flask, render_template_string, redirect, request
from wtforms import BooleanField, Form, IntegerField, PasswordField, SelectMultipleField, StringField, ValidationError, validators

app = Flask(__name__)
PAGE = pathlib.Path(__file__).with_suffix(".html").read_text(encoding="utf-8")


def begins_with_plus(_form, field):
    if field.data and not field.data.startswith("+"):
        raise ValidationError("does not begin with +")


class SignUp(Form):
    name = StringField("Name", [validators.Length(1, 40)])
    username = StringField("Username", [validators.Regexp(r"^\w+$"), validators.Length(3, 25)])
    password = PasswordField("Password", [validators.Length(12, 128)])
    password_again = PasswordField("Password, once more", [validators.EqualTo("password")])
    age = IntegerField("Age", [validators.InputRequired(), validators.NumberRange(18, 120)])
    phone = StringField("Phone, if you like", [validators.Optional(), begins_with_plus, validators.Length(9, 16)])
    topics = SelectMultipleField("Topics", choices=[("news", "News"), ("events", "Events")])
    terms = BooleanField("Terms", [validators.InputRequired()], false_values=("off",))


@app.post("/")
def sign_up():
    form = SignUp(request.form)
    if form.validate():
        return redirect("/thanks", 303)
    return render_template_string(PAGE, form=form), 422


def main():
    body, count = sys.argv[1].encode(), int(sys.argv[2])
    for _ in range(count):
        given = {
            "REQUEST_METHOD": "POST", "PATH_INFO": "/", "SERVER_NAME": "x", "SERVER_PORT": "80", "wsgi.url_scheme": "http",
            "CONTENT_TYPE": "application/x-www-form-urlencoded", "CONTENT_LENGTH": str(len(body)), "wsgi.input": io.BytesIO(body),
        }
        said = []
        b"".join(app(given, lambda status, fields, said=said: said.append(status)))
        print(said[0])


if __name__ == "__main__":
    main()
